#!/bin/bash
# Runs each tool on the example, and compares what comes out with KLayout and with an image by numpy.
#
# usage: tools/test.sh [PROGRAM]      PROGRAM is the built opc: crates/opc/out/opc where none is given
#
# It installs nothing: it says what is missing and runs the rest. It ends with 1 where something fails or can't be run. The gate
# doesn't run it. Wanted (Debian's names): klayout, python3-numpy, python3-matplotlib, python3-gdspy, parallel.
set -u
here=$(cd "$(dirname "$0")" && pwd)
examples=$here/../examples
python=${PYTHON:-/usr/bin/python3}
export OPC; OPC=$(realpath -m "${1:-${OPC:-$here/../crates/opc/out/opc}}")
export PYTHONDONTWRITEBYTECODE=1
work=$(mktemp -d); trap 'rm -rf "$work"' EXIT
failed=0

passes() { local name=$1; shift; if "$@" > "$work/out" 2>&1; then echo "ok: $name: $(tail -n 1 "$work/out")"; else echo "FAILED: $name"; sed 's/^/    /' "$work/out" | tail -n 5; failed=1; fi; }
# refuses NAME OUTPUT COMMAND..: status 2, one line, and the output as it was
refuses() {
    local name=$1 output=$2; shift 2
    printf old > "$output"
    "$@" > "$work/out" 2>&1; local got=$?
    if [ $got -eq 2 ] && [ "$(wc -l < "$work/out")" -eq 1 ] && [ "$(cat "$output")" = old ]; then echo "ok: $name: $(cat "$work/out")"
    else echo "FAILED: $name: status $got"; sed 's/^/    /' "$work/out" | tail -n 5; failed=1; fi
}
missing() { echo "missing: $1"; failed=1; }

have_klayout=yes; command -v klayout > /dev/null || { missing "klayout (apt-get install klayout)"; have_klayout=; }
for module in numpy matplotlib; do
    "$python" -c "import $module" 2> /dev/null || { missing "python3-$module (apt-get install python3-$module)"; have_klayout=; }
done
have_gdspy=yes; "$python" -c 'import gdspy' 2> /dev/null || { missing "python3-gdspy (apt-get install python3-gdspy)"; have_gdspy=; }
have_parallel=yes; command -v parallel > /dev/null || { missing "parallel (apt-get install parallel)"; have_parallel=; }
have_opc=yes; [ -x "$OPC" ] && [ ! -d "$OPC" ] || { missing "the program $OPC: cd crates/opc && rt run"; have_opc=; }

echo "== the example's files"
if [ $have_gdspy ]; then
    passes "the layout is made again" "$python" "$examples/make_layout.py" "$work"
    passes "it is the file in examples/" cmp "$work/cell.gds" "$examples/cell.gds"
fi
if "$python" -c 'import numpy' 2> /dev/null; then
    passes "the kernels are made again" "$python" "$examples/make_kernels.py" "$work"
    cat > "$work/near.py" << 'PY'
import sys
sys.path.insert(0, sys.argv[1])
import opcfiles
a, b = (opcfiles.read_kernels(it) for it in sys.argv[2:])
apart = int(abs(a.parts - b.parts).max())
print(f"entries differ by at most {apart}")
sys.exit(apart > 1 or (a.reach, a.weights) != (b.reach, b.weights))
PY
    for it in duv duv_defocus; do passes "$it.opk is the file in examples/, but for roundings" "$python" "$work/near.py" "$here" "$work/$it.opk" "$examples/$it.opk"; done
    "$python" -c "import numpy; numpy.save('$work/k.npy', numpy.ones((2, 9, 9)) * (1 - 0.5j)); numpy.savetxt('$work/k.txt', numpy.eye(3) * (1 + 2j)); numpy.save('$work/even.npy', numpy.ones((8, 8)))"
    passes "kernels.py: a list of matrices" "$python" "$here/kernels.py" "$work/a.opk" "$work/k.npy" --level 0.25
    passes "kernels.py: a text, two transmissions" "$python" "$here/kernels.py" "$work/b.opk" "$work/k.txt" --covered 4 0 --uncovered -1 0
    refuses "kernels.py: an even side" "$work/c.opk" "$python" "$here/kernels.py" "$work/c.opk" "$work/even.npy"
    refuses "kernels.py: no such file" "$work/c.opk" "$python" "$here/kernels.py" "$work/c.opk" "$work/absent.npy"
    refuses "kernels.py: a file that is no matrix" "$work/c.opk" "$python" "$here/kernels.py" "$work/c.opk" "$examples/cell.gds"
    refuses "kernels.py: a transmission in OPK1" "$work/c.opk" "$python" "$here/kernels.py" "$work/c.opk" "$work/k.npy" --form 1 --covered 2 0
    if [ $have_opc ]; then
        passes "opc reads them: one format" "$OPC" probe "$examples/square.gds" "$work/a.opk" TOP 1 0 5 5
        passes "opc reads them: the other" "$OPC" probe "$examples/square.gds" "$work/b.opk" TOP 1 0 5 5
    fi
fi

[ $have_opc ] && [ $have_klayout ] || { echo "not run: all that needs opc and KLayout"; exit 1; }

echo "== correction, and an image by numpy"
layer=("$examples/cell.gds" "$examples/duv.opk" "$examples/rules.toml")
passes "simulate" "$OPC" simulate "${layer[@]}" "$work/before.txt"
passes "correct" "$OPC" correct "${layer[@]}" "$work/mask.gds" "$work/table.txt"
passes "intensities and errors are those of numpy's image" "$python" "$here/compare_image.py" "${layer[@]}" "$work/before.txt" "$work/mask.gds" "$work/table.txt"
sed 's/error \(-\?\)\([0-9]\)$/error \11\2/' "$work/table.txt" > "$work/changed.txt"
if "$python" "$here/compare_image.py" "${layer[@]}" "$work/before.txt" "$work/mask.gds" "$work/changed.txt" > "$work/out" 2>&1; then echo "FAILED: changed errors pass"; failed=1; else echo "ok: changed errors are seen"; fi

echo "== pictures"
passes "picture.py" "$python" "$here/picture.py" "$work/picture" "${layer[@]}" "$work/mask.gds" "$work/table.txt" --before "$work/before.txt"
passes "it wrote a PNG and an SVG" bash -c "head -c 8 '$work/picture.png' | grep -q PNG && grep -q '</svg>' '$work/picture.svg'"
refuses "picture.py: a table that is none" "$work/bad.png" "$python" "$here/picture.py" "$work/bad" "${layer[@]}" "$work/mask.gds" "$examples/rules.toml"
refuses "picture.py: a layout that is none" "$work/bad.png" "$python" "$here/picture.py" "$work/bad" "$examples/rules.toml" "${layer[@]:1}" "$work/mask.gds" "$work/table.txt"

echo "== KLayout"
passes "opc_klayout.py" "$python" "$here/opc_klayout.py" "$examples/cell.gds" TOP 10/0 "$examples/duv.opk" "$examples/rules.toml" "$work/shown"
passes "its target is the layout's" "$python" "$here/same_shapes.py" "$work/shown.gds" TOP 10/0 "$examples/cell.gds" TOP 10/0
passes "its mask is that of opc by itself" "$python" "$here/same_shapes.py" "$work/shown.gds" TOP 20/0 "$work/mask.gds" MASK 20/0
items=$(grep -c '<item>' "$work/shown.lyrdb"); fragments=$(grep -c '^fragment ' "$work/table.txt")
passes "a marker for each fragment: $items" test "$items" -eq "$fragments"
refuses "opc_klayout.py: no such cell" "$work/bad.gds" "$python" "$here/opc_klayout.py" "$examples/cell.gds" NONE 10/0 "$examples/duv.opk" "$examples/rules.toml" "$work/bad"
refuses "opc_klayout.py: no such layer" "$work/bad.gds" "$python" "$here/opc_klayout.py" "$examples/cell.gds" TOP 99/0 "$examples/duv.opk" "$examples/rules.toml" "$work/bad"
sed 's/^grid = 4/grid = 7/' "$examples/rules.toml" > "$work/off.toml"
refuses "opc_klayout.py: a refusal of opc" "$work/bad.gds" "$python" "$here/opc_klayout.py" "$examples/cell.gds" TOP 10/0 "$examples/duv.opk" "$work/off.toml" "$work/bad"
cp "$here/opc_klayout.lym" "$work/macro.lym"
passes "the macro, in a hidden window" env QT_QPA_PLATFORM=offscreen OPC_MACRO_TRIAL=1 TRIAL_TOOLS="$here" TRIAL_OUT="$work/macro" klayout -z -nc -rx -r "$here/try_macro.py"
passes "its mask is that of opc by itself" "$python" "$here/same_shapes.py" "$work/macro.gds" TOP 20/0 "$work/mask.gds" MASK 20/0

echo "== clips"
if [ $have_parallel ]; then
    passes "cut" "$python" "$here/clips.py" cut "${layer[@]}" "$work/clips" --side 512
    refuses "join before the clips are done" "$work/bad.gds" "$python" "$here/clips.py" join "$work/clips" "$work/bad.gds"
    passes "correct them, two at a time" bash -c "cd '$work/clips' && parallel --jobs 2 --joblog log < jobs.txt"
    passes "join" "$python" "$here/clips.py" join "$work/clips" "$work/joined.gds"
    cp -r "$work/clips" "$work/tasks"; rm "$work/tasks"/{masks,tables,said}/*
    for task in 1 2 3 4; do passes "task $task of 4, as Slurm runs it" bash -c "cd '$work/tasks' && SLURM_ARRAY_TASK_ID=$task SLURM_ARRAY_TASK_MAX=4 bash '$examples/clips.sbatch'"; done
    for it in masks tables said; do passes "their $it are those of parallel" diff -r "$work/clips/$it" "$work/tasks/$it"; done
    refuses "a task outside the clips' folder" "$work/nothing" env -C "$work" SLURM_ARRAY_TASK_ID=1 SLURM_ARRAY_TASK_MAX=1 bash "$examples/clips.sbatch"
    refuses "a task of no array" "$work/nothing" env -C "$work/tasks" bash "$examples/clips.sbatch"
    passes "seams" "$python" "$here/clips.py" seams "$work/clips" "$work/joined.gds"
    passes "cut, shifted by half" "$python" "$here/clips.py" cut "${layer[@]}" "$work/shifted" --side 512 --shift
    passes "correct them" bash -c "cd '$work/shifted' && parallel --jobs 2 --joblog log < jobs.txt"
    passes "join them" "$python" "$here/clips.py" join "$work/shifted" "$work/other.gds"
    passes "compare" "$python" "$here/clips.py" compare "$work/clips" "$work/joined.gds" "$work/other.gds"
    refuses "cut: cores that are too small" "$work/nothing" "$python" "$here/clips.py" cut "${layer[@]}" "$work/clips3" --side 10
    refuses "cut: a folder that can't be made" "$work/nothing" "$python" "$here/clips.py" cut "${layer[@]}" "$work/absent/clips"
    echo '{}' > "$work/tasks/plan.json"
    refuses "join: a plan that is none" "$work/bad.gds" "$python" "$here/clips.py" join "$work/tasks" "$work/bad.gds"
    refuses "cut: a folder that is there" "$work/nothing" "$python" "$here/clips.py" cut "${layer[@]}" "$work/clips"
fi
[ $failed -eq 0 ] && echo "all passed"
exit $failed
