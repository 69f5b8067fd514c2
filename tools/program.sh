# What ./spectec, ./prove and tools/build-unproved share. Each of them sets `top`, the folder of the repository, and reads this.
# shellcheck shell=sh disable=SC2034,SC2154  (`top` comes from there, and the names are used there)
crate=$top/crates/spectec
proved=$crate/out/spectec
unproved=$crate/out/spectec-unproved

say() {
    printf 'spectec: %s\n' "$*" >&2
}

# Whether the command of Rattle is there, or else says where it comes from.
has_rt() {
    command -v rt > /dev/null && return
    say 'no rt is on PATH: README.md, "What it needs", says where it comes from'
    return 1
}

# The names of the crates that the program is made of.
name_crates() {
    awk '
        { sub(/#.*/, "") }
        split($0, sides, ":") == 2 { split(sides[1], name, " "); below[name[1]] = sides[2] }
        END {
            found["spectec"] = 1; wanted[1] = "spectec"; count = 1
            for (k = 1; k <= count; k++) {
                print wanted[k]
                names = split(below[wanted[k]], uses, " ")
                for (i = 1; i <= names; i++)
                    if ((uses[i] in below) && !(uses[i] in found)) {
                        found[uses[i]] = 1; wanted[++count] = uses[i]
                    }
            }
        }' "$top/crates.txt"
}

# Whether there is the program $1, and no file in the folders $2 of its crates is newer.
is_up_to_date() {
    program=$1 parts=$2
    [ -x "$program" ] || return 1
    set --
    for name in $(name_crates); do
        for part in $parts; do
            if [ -d "$top/crates/$name/$part" ]; then set -- "$@" "$top/crates/$name/$part"; fi
        done
    done
    [ -z "$(find "$@" -newer "$program" -type f | head -n 1)" ]
}

# Whether the proved program is there, and is that of the sources as they stand; likewise the other.
is_proved() {
    is_up_to_date "$proved" 'src specs'
}

is_built_unproved() {
    is_up_to_date "$unproved" src
}
