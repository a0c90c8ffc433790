#!/usr/bin/env bash
# Prints how fast sc_field adds multiples of slices up, beside the same work in C and in ISA-L. README.md says how to read
# it. It needs rt on the path, and gcc on an x86-64 machine for the other two; ISA-L is left out where its header is missing.
set -euo pipefail

# How often each program runs, in turn, so that a slow second of the machine does not fall on one of them alone.
runs=${1:-6}

here=$(cd "$(dirname "${BASH_SOURCE[0]}")" && pwd)
crate=$here/../crates/field_bench
scratch=$(mktemp -d)
trap 'rm -rf "$scratch"' EXIT

# Builds the proved program for a processor, and keeps it under a name.
build() {
    echo "proving and building crates/field_bench for $1" >&2
    (cd "$crate" && rt run --cpu="$1" >&2)
    cp "$crate/out/field_bench" "$scratch/$2"
}

programs=()
if [ "$(uname -m)" != x86_64 ] || ! command -v gcc >/dev/null; then
    echo "no gcc on an x86-64 machine here: C and ISA-L are left out" >&2
else
    isal=()
    if echo '#include <isa-l/erasure_code.h>' | gcc -E - >/dev/null 2>&1 && grep -qw avx2 /proc/cpuinfo; then
        isal=(-DISAL -lisal)
    else
        echo "no ISA-L, or no AVX2 here: it is left out" >&2
    fi
    gcc -O3 -march=x86-64-v2 "$here/kernel.c" -o "$scratch/kernel" "${isal[@]}"
    programs+=("$scratch/kernel")
fi
build x86-64-v2 Rattle-v2
programs+=("$scratch/Rattle-v2 time")
if grep -qw avx2 /proc/cpuinfo; then
    build x86-64-v3 Rattle-v3
    programs+=("$scratch/Rattle-v3 time")
fi

for _ in $(seq "$runs"); do
    for program in "${programs[@]}"; do
        name=${program##*/}
        $program | sed "s/^Rattle /${name%% *} /" >>"$scratch/lines"
    done
done

# Of the runs of one line the best round of all, and the middle one of their middle rounds.
awk '
    function middle(key, count, k, j, held, sorted) {
        for (k = 1; k <= count; k++) {
            held = medians[key, k]
            for (j = k; j > 1 && sorted[j - 1] > held; j--) sorted[j] = sorted[j - 1]
            sorted[j] = held
        }
        return sorted[int((count + 1) / 2)]
    }
    function table(title, values, r, l) {
        printf "%-30s", title
        for (l = 1; l <= lengths; l++) printf "%8d", length_of[l]
        print ""
        for (r = 1; r <= rows; r++) {
            printf "%-30s", row_of[r]
            for (l = 1; l <= lengths; l++) printf "%8d", values[row_of[r], length_of[l]]
            print ""
        }
        print ""
    }
    function ratios(ours, theirs, r, l, job, key, other, least, at) {
        for (r = 1; r <= rows; r++) {
            if (index(row_of[r], ours " ") != 1) continue
            job = substr(row_of[r], length(ours) + 2)
            other = theirs " " job
            for (l = 1; l <= lengths; l++) {
                if (!((other, length_of[l]) in best)) continue
                key = best[row_of[r], length_of[l]] / best[other, length_of[l]]
                printf "ratio %s / %s %s %d %.2f %.2f\n", ours, theirs, job, length_of[l], key, mid[row_of[r], length_of[l]] / mid[other, length_of[l]]
                if (at == "" || key < least) { least = key; at = job " " length_of[l] }
            }
        }
        if (at != "") printf "least %s / %s %.2f at %s\n\n", ours, theirs, least, at
    }
    {
        row = $1 " " $2 " " $3
        if (!(row in seen)) { seen[row] = 1; row_of[++rows] = row }
        if (!($4 in known)) { known[$4] = 1; length_of[++lengths] = $4 }
        if ($5 > best[row, $4] + 0) best[row, $4] = $5 + 0
        medians[row SUBSEP $4, ++counts[row, $4]] = $6 + 0
    }
    END {
        for (r = 1; r <= rows; r++)
            for (l = 1; l <= lengths; l++) {
                split("", sorted)
                key = row_of[r] SUBSEP length_of[l]
                mid[row_of[r], length_of[l]] = middle(key, counts[row_of[r], length_of[l]])
            }
        print "MB/s (10^6 bytes of source)"
        table("best, by bytes of a source", best)
        table("median, by bytes of a source", mid)
        ratios("Rattle-v2", "C-16-lanes")
        ratios("Rattle-v3", "ISA-L-AVX2")
    }' "$scratch/lines"
