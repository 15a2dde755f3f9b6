# shellcheck shell=bash
# Sourced at the top of the repository by the scripts that need the Rattle kit. This is the one place that names the kit's version:
# a missing kit ends the script, and another one is said, since proofs that this kit finds another may not.
kit_needed=rattle-kit-13f
if ! command -v rt > /dev/null; then
    {
        echo "rt isn't there, the command of the Rattle kit. Rattle is a language like Rust with proofs built in, in which this"
        echo "repository is written: rt proves and compiles it. The kit that is needed is $kit_needed, with rt on the PATH."
    } >&2
    exit 1
fi
kit_found=$(rt version)
kit_found=${kit_found%% *}
if [ "$kit_found" != "$kit_needed" ]; then
    echo "this Rattle kit is $kit_found, and the repository is proved with $kit_needed" >&2
fi
