"""Compares crates/status_page/src/plots.rt with what it is made of, the page of plots that a server
shows in a browser: crates/status_page/page/plots.html. It prints nothing where they agree.

The text of the page is a constant. The policy beside it has the SHA-256 of the page's script and of
its style: a browser runs no other script, and connects to nothing but the server.
"""
from __future__ import annotations

import base64
import hashlib
import re

from pathd_tools.pages.source import CRATES, TOP
from pathd_tools.toolbox import parser

PAGE = CRATES / "status_page/page/plots.html"
MADE = CRATES / "status_page/src/plots.rt"

# What a browser may load and run for the page, with the hashes of its script and of its style.
POLICY = "; ".join([
    "default-src 'none'",
    "script-src '{script}'",
    "style-src '{style}'",
    "img-src data:",
    "connect-src 'self'",
    "base-uri 'none'",
    "form-action 'none'",
    "frame-ancestors 'none'",
])

SOURCE = '''//! The page of plots, which `tools/pathd-tools plots-page --write` writes here from
//! `page/plots.html`.

ghost use Rattle.std.specs.Prelude.{{◌≡◌}};
ghost use Rattle.status_page.specs.Response.{{plots, policy}};

/// The page.
const PLOTS: &str = r##"{page}"##;

/// What a browser may load and run for it. The hashes are those of its script and of its style.
const POLICY: &str =
    "{policy}";

/// The page that draws the numbers of a server, and reads them from it again and again.
#[tactic(auto, unfolding(crate::specs::Response::plots))]
pub fn plots() -> &'static str
    ensures {{ result.now ≡ plots }}
{{
    PLOTS
}}

/// The value of the field `Content-Security-Policy` with which the page is sent.
#[tactic(auto, unfolding(crate::specs::Response::policy))]
pub fn policy() -> &'static str
    ensures {{ result.now ≡ policy }}
{{
    POLICY
}}
'''


def hashed(page: str, element: str) -> str:
    """The hash of the text of the page's one element of this name, as a policy has it."""
    [text] = re.findall(rf"<{element}>(.*?)</{element}>", page, re.S)
    return "sha256-" + base64.b64encode(hashlib.sha256(text.encode()).digest()).decode()


def made() -> str:
    """The source that the page gives."""
    page = PAGE.read_text()
    return SOURCE.format(page=page, policy=POLICY.format(script=hashed(page, "script"), style=hashed(page, "style")))


def main(words: list[str]) -> int:
    """Writes the source, or says that it differs."""
    options = parser(__doc__)
    options.add_argument("--write", action="store_true", help="write the source from the page")
    source = made()
    if options.parse_args(words).write:
        MADE.write_text(source)
    elif MADE.read_text() != source:
        print(f"{MADE.relative_to(TOP)}: `tools/pathd-tools plots-page --write` would change it")
        return 1
    return 0
