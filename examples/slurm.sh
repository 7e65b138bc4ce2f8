#!/usr/bin/env bash
#SBATCH --array=1-20
#SBATCH --ntasks=1
# sbatch examples/slurm.sh MODEL CHANNEL EACH FOLDER: task K of the array makes the runs (K - 1) * EACH + 1 to K * EACH. When all tasks have
# ended, `matgravel add FOLDER/part*.csv > timing.csv` prints byte for byte what one process would print for all runs.
set -euo pipefail
[[ $# -eq 4 && $3 =~ ^[1-9][0-9]*$ ]] || { echo "usage: sbatch examples/slurm.sh MODEL CHANNEL EACH FOLDER" >&2; exit 2; }
task=${SLURM_ARRAY_TASK_ID:?is set by Slurm, for each task of an array}
"${MATGRAVEL:-matgravel}" timing "$1" --channel "$2" --first "$(((task - 1) * $3 + 1))" --runs "$3" --times > "$4/part$task.csv"
