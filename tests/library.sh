# The static library, for what links it. To be sourced, with `root` the repository and `out` a folder for what is built there.
library="$root/target/staticlib/libplanner_c.a"
# What rustc is told to link it.
linked=(-L "native=$root/target/staticlib" -l static=planner_c)

# The library is built anew unless it is younger than every file that it is made of.
library_built() {
    [ -f "$library" ] && [ -z "$(find "$root/crates" -name out -prune -o -newer "$library" -type f -print -quit)" ] &&
        [ "$library" -nt "$root/crates.txt" ] && return
    "$root/tools/library" >"$out/staticlib" 2>&1 && return
    tail -n 20 "$out/staticlib"
    return 1
}
