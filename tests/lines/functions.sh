# shellcheck shell=bash
# Sourced at the top of the repository by the tests of the programs that answer tickets.
export PYTHONPATH=tests/lines PYTHONDONTWRITEBYTECODE=1

# recorded PROGRAM FOLDER: each input NAME.in of the folder is answered by what is in NAME.out, also in short reads.
recorded() {
    local program=$1 name given wanted count=0
    name=$(basename "$program")
    for given in "$2"/*.in; do
        wanted=${given%.in}.out
        "$program" < "$given" | cmp - "$wanted" || { echo "tests: $name on $(basename "$given")"; exit 1; }
        # a program that has ended reads no more, and dd may not write on
        { dd bs=13 status=none < "$given" || true; } | "$program" | cmp - "$wanted" || { echo "tests: $name on $(basename "$given") in short reads"; exit 1; }
        count=$((count + 1))
    done
    echo "$name: $count recorded inputs answered"
}
