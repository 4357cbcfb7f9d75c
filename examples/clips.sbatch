#!/bin/bash
# A Slurm job array that corrects the clips of tools/clips.py, in a folder that all machines see. Submit it in that folder:
#
#   cd CLIPS && sbatch --array=1-$(wc -l < jobs.txt) /path/to/examples/clips.sbatch
#
# Task T of an array 1-N runs the lines T, T + N, T + 2 N .. of jobs.txt, so with fewer tasks than clips each runs several: Slurm
# refuses an array above its MaxArraySize, which allows 1000 where nobody changed it. A clip whose run came to its end isn't run
# again, so what failed is run again by submitting the same.
#
# OPC names the built program on the machines. A task ends with the status of the last clip that failed in it, 0 where none did.
#SBATCH --job-name=opc
#SBATCH --cpus-per-task=1
#SBATCH --mem=1G
#SBATCH --time=00:30:00
#SBATCH --output=said/slurm-%A_%a.log
export OPC=${OPC:-opc}
if [ ! -r jobs.txt ]; then echo "clips.sbatch: jobs.txt isn't here: submit in the folder that clips.py cut made" >&2; exit 2; fi
if [ "${SLURM_ARRAY_TASK_ID:-0}" -lt 1 ]; then echo "clips.sbatch: no task from 1 on: submit with --array=1-N" >&2; exit 2; fi
status=0
lines=$(wc -l < jobs.txt)
for ((line = SLURM_ARRAY_TASK_ID; line <= lines; line += SLURM_ARRAY_TASK_MAX)); do
    job=$(sed -n "${line}p" jobs.txt)
    said=${job##*> }
    grep -qs '^end ' "$said" && continue
    bash -c "$job" || { status=$?; echo "clips.sbatch: line $line of jobs.txt ended with status $status: see $said" >&2; }
done
exit $status
