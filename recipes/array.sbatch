#!/bin/sh
#SBATCH --job-name=baselines
#SBATCH --output=slurm-%A.log --open-mode=append
#SBATCH --ntasks=1 --cpus-per-task=1 --mem=200M --time=60
# sbatch --array=1-TASKS%20 recipes/array.sbatch NAMES PER: task k does the PER baselines of NAMES from line
# (k - 1)*PER + 1 on, not counting blank ones. Submit from the folder of the files; RECIPES names the folder of `one` where it
# isn't recipes/.
k=${SLURM_ARRAY_TASK_ID:?submit with --array}; per=${2:-1}
[ -r "$1" ] || { echo "no list of names: $1" >&2; exit 2; }
for n in "$k" "$per"; do
  case $n in *[!0-9]* | 0*) echo 'array.sbatch NAMES PER: PER is a whole number from 1 on' >&2; exit 2;; esac
done
sed '/^$/d' <"$1" | sed -n "$(((k - 1) * per + 1)),$((k * per))p" | xargs -r -d '\n' -n 1 "${RECIPES:-recipes}/one"
