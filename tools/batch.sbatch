#!/bin/bash
# Runs the tasks of a batch as the elements of a Slurm array. In the folder of the checkout:
#
#   tools/batch examples --out results --list
#   sbatch --array=1-15 tools/batch.sbatch results
#   tools/batch examples --out results --table
#
# The first command prints the number of tasks, which is the last of the array. An element whose task has a row ends at once, so the
# second command may be given again. Options such as --seconds follow each of the three commands, and are the same.
#SBATCH --job-name=dualfond
#SBATCH --cpus-per-task=1
#SBATCH --mem=4500M
#SBATCH --time=12:00:00
#SBATCH --output=/dev/null
folder=$1
shift
IFS=$'\t' read -r name domain problem side < <(sed -n "${SLURM_ARRAY_TASK_ID}p" "$folder/tasks")
[ -n "$name" ] || { echo "batch.sbatch: $folder/tasks has no line $SLURM_ARRAY_TASK_ID" >&2; exit 2; }
[ -e "$folder/$name.row" ] || exec tools/batch --one "$name" "$domain" "$problem" "$side" --out "$folder" "$@"
