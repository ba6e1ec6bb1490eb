"""The tools of tools/pathd-tools. A tool is a module with `main(words)` or a script of tools/shell,
and has a line here."""
from pathd_tools import TOP
from pathd_tools.toolbox import Tool, Toolbox

PAGES = [
    Tool("links", "pages.links", "each link and each path on a page leads to something"),
    Tool("proofs", "pages.proofs", "each contract, clause, file and edit that docs/PROOFS.md and the crates' pages name exists"),
    Tool("reading", "pages.reading", "which definitions a reader of the contracts has to believe; --check, --write"),
    Tool("words", "pages.words", "prints every definition of specs/ from A to Z, with its place"),
    Tool("complete", "pages.complete", "each public function, and each word that a public contract cites, has a comment"),
    Tool("widths", "pages.widths", "prose of 100 columns, tables of 160, sentences of 40 words; --write"),
    Tool("uses", "pages.uses", "each use on a crate's page is in the sources that the page links"),
    Tool("blocks", "pages.blocks", "each block of commands has a tool that carries it out, or says why none does; --list"),
    Tool("apart", "pages.apart", "no crate of the program uses a crate of tests"),
    Tool("unsafe", "pages.unsafe", "no crate has `unsafe`, but for the two lines that need it"),
    Tool("help-texts", "pages.help_texts", "the man page and the completions have the program's commands and options, and each number is checked"),
    Tool("codes", "pages.codes", "the pages, the crate and the clients have the codes of docs/codes.csv; --write"),
    Tool("plots-page", "pages.plots_page", "the page of plots in crates/status_page is its page/plots.html; --write"),
    Tool("versions", "pages.versions", "the program, the clients, the gateway and the pages have one version"),
    Tool("frozen", "pages.frozen", "the bytes that docs/STORE.md says are frozen are those of the sources and of docs/codes.csv"),
    Tool("metric-names", "pages.metric_names", "the alert rules, the dashboard and the pages have the names of the server's numbers"),
    Tool("installed", "pages.installed", "the pages as they are installed: each link leads to something, and no block needs the repository"),
    Tool("pictures", "pages.pictures", "each picture of docs/ is that of its text in docs/pictures; --write"),
    Tool("edits", "pages.edits", "tries the wrong bodies of crates by the prover, in a copy of the repository"),
]

CHECKS = [
    Tool("vectors", "checks.vectors", "the cases of folders such as tools/cases"),
    Tool("defined", "checks.defined", "what the program does without options, as tools/cases/defined has it"),
    Tool("client", "client.sh", "sessions of the Python client, with and without a key, and after a kill"),
    Tool("go-client", "go_client.sh", "the tests of the Go client"),
    Tool("examples", "checks.examples", "the programs on the clients' pages, and the one in Rust: each prints what its page says"),
    Tool("gateway", "gateway.sh", "the tests of pathd-gateway, from outside too: gRPC, Connect, malformed frames, verification"),
    Tool("protobuf", "checks.protobuf", "docs/segments.proto and the worked example, with Google's protobuf"),
    Tool("syscalls", "syscalls.sh", "the calls on a store's file, in the order that docs/STORE.md has"),
    Tool("server-calls", "checks.server_calls", "the reads and writes of a session"),
    Tool("locks", "locks.sh", "the commands beside another process's lock"),
    Tool("closed-handles", "checks.closed_handles", "the commands with closed standard handles: nothing but the store is in its file"),
    Tool("terminal", "checks.terminal", "`format` at a pseudo terminal: what it asks, and which answers leave the file as it is"),
    Tool("asking", "checks.asking", "`ask`: pages, lines of JSON, refusals; servers that are silent, cut a reply or change it"),
    Tool("steps", "checks.steps", "the blocks of commands of pages that are marked by this name, and what they print"),
    Tool("going-on", "checks.going_on", "a server that is stopped and continued, whose lines nobody reads, or that gets no thread"),
    Tool("faults", "faults.sh", "the commands while calls on the store's file fail or are interrupted"),
    Tool("block-device", "block_device.sh", "the commands over a loop device, also one that loses writes; as root"),
    Tool("network", "network.sh", "the tunnel and the proxies of docs/NETWORK.md, in two network namespaces; as root"),
    Tool("plots-shown", "checks.plots_shown", "the page of plots in headless Chromium, beside a server that is loaded, killed and started again; --pictures"),
    Tool("alert-rules", "checks.alert_rules", "the alert rules and their tests, and the dashboard's expressions, by promtool"),
    Tool("package", "checks.package", "makes the packages with their checksums, and installs and removes Debian's in a new system; as root"),
    Tool("units", "checks.units", "the steps of docs/operating and the units of deploy/ in a container; as root"),
    Tool("units-inside", "checks.units_inside", "the steps alone, on a system that is thrown away; as root"),
]

ATTACKS = [
    Tool("power-cuts", "attacks.power_cuts", "cuts the power at each write and sync of a recorded server, and opens what is left"),
    Tool("histories", "attacks.histories", "one order of the commands explains all replies of 32 sessions, over kills"),
    Tool("hostile", "attacks.hostile", "mutated frames and images, each answer compared with the model's"),
    Tool("expiring", "attacks.expiring", "lookups and pages while rows expire, beside the server's own purges"),
    Tool("clocks", "attacks.clocks", "a server's clock that is set ahead and back, beside its own purges"),
    Tool("refused-calls", "attacks.refused_calls", "refuses each allocation and call of the system of five commands and a server"),
    Tool("refused-memory", "attacks.refused_memory", "refuses each allocation of `once`"),
    Tool("refused-tests", "attacks.refused_tests", "refuses each allocation of each test"),
    Tool("peers", "attacks.peers", "slow, silent, deaf and resetting peers, 10,000 connections, and the server's memory"),
    Tool("web-peers", "attacks.web_peers", "hostile HTTP for the gateway and the pages of numbers, and the memory of both programs"),
    Tool("hanging", "attacks.hanging", "a device that hangs for seconds, while clients give up with commands under way"),
    Tool("servers", "attacks.servers", "three servers with the same commands, each killed and started again in turn"),
    Tool("replicated", "attacks.replicated", "a store on three machines by GlusterFS: replicas, servers and machines lost, a split; as root"),
    Tool("soak", "attacks.soak", "a mixed load for an hour, with many checkpoints"),
    Tool("full-disk", "attacks.full_disk", "a file system that runs out of room; as root"),
    Tool("snapshots", "attacks.snapshots", "snapshots of a store beside its running server; as root"),
    Tool("planted", "attacks.planted", "faults in the program's sources, each of which power-cuts, histories or hostile has to see"),
    Tool("attacks", "attacks.together", "power-cuts, histories, refused calls, peers, web-peers, hostile, soak and planted, with a summary"),
]

LOAD = [
    Tool("load", "load.load", "puts a load on a server, and checks each reply"),
    Tool("plot", "load.plot", "draws a series of `load` over time"),
    Tool("short-load", "short_load.sh", "load and plot, for two seconds"),
]

OTHERS = [
    Tool("try", "trying", "shows the program at work in a minute; builds it first, without its proofs, where it is not built"),
    Tool("test", "testing.together", "every test without a proof, in minutes: of crates, pages and clients; or of the crates that are named"),
    Tool("gate", "gate", "the gate of a merge: `rt ci` without the proofs of the tests, or with them"),
    Tool("need", "need", "what the tools need and is missing on this machine"),
    Tool("all", "everything", "`test`, and the checks of the program that need packages or root"),
]

TOOLS = Toolbox(
    program="tools/pathd-tools",
    about="Checks the repository's pages, and tries the built program; none of it is part of the gate.",
    package="pathd_tools",
    scripts=TOP / "tools" / "shell",
    groups={
        "the repository's pages": PAGES,
        "the built program, beside its pages and the system": CHECKS,
        "attacks on the built program (docs/RELIABILITY.md)": ATTACKS,
        "a load, and pictures": LOAD,
        "others": OTHERS,
    },
)
