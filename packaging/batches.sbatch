#!/bin/bash
#SBATCH --job-name=tcpwit
#SBATCH --ntasks=1
#SBATCH --cpus-per-task=2
#SBATCH --requeue
# Checks one of the files that `tcpwit-parts` wrote, as a task of a Slurm array job; docs/how-to/many-cases.md shows the whole batch.
#
#     sbatch --array=1-FILES batches.sbatch PARTS LINES
#
# PARTS and LINES are folders that all machines share. The lines for PARTS/00007 are moved to LINES/00007 once they are complete, so a task may
# run again. The task is COMPLETED if all its cases were answered, whatever the answers are. It is FAILED if memory ran out or a device failed.
set -u
part=$(printf %05d "$SLURM_ARRAY_TASK_ID")
"${TCPWIT:-/usr/bin/tcpwit}" many --workers "${SLURM_CPUS_PER_TASK:-1}" < "$1/$part" > "$2/.$part"
status=$?
[ "$status" -le 2 ] || exit "$status"
mv "$2/.$part" "$2/$part"
