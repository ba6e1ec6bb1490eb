# For suites in Go: builds with modules take Debian's packages in place of those that would be fetched.
# It is sourced, and `work` is a folder of the suite's own.

# Writes the file $work/replaced.mod: the go.mod of a folder, where Debian's package is the module of
# each name after it. A package that is not installed is an empty module.
replace_modules() { # FOLDER NAME ..
  local name gocode=/usr/share/gocode/src
  cp "$1/go.mod" "$work/replaced.mod"
  for name in "${@:2}"; do
    mkdir -p "$work/modules/$name"
    [ ! -d "$gocode/$name" ] || cp -rL "$gocode/$name/." "$work/modules/$name"
    printf 'module %s\n' "$name" >"$work/modules/$name/go.mod"
    go mod edit -replace="$name=$work/modules/$name" "$work/replaced.mod"
  done
}
