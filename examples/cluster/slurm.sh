#!/bin/sh
# Submits N shares to Slurm as an array of jobs, and their merge as a job that waits until all of them have ended well:
# slurm.sh N FOLDER SUPPORT WORD..
# The words behind the support are those of one run, but for --engine and --split. Prints the number of the merge's job. FOLDER,
# which all nodes see, gets the output of each share and the answer. After a failure, `sbatch --array=I FOLDER/share` runs the
# share I again, and `sbatch FOLDER/merge` the merge.
set -eu
of=$1 folder=$2 support=$3
shift 3
desq=${DESQ:-./desq}
mkdir -p "$folder"
words=
for word; do
    words="$words '$(printf %s "$word" | sed "s/'/'\\\\''/g")'"
done
cat > "$folder/share" <<END
#!/bin/sh
share='$folder'/\$SLURM_ARRAY_TASK_ID
'$desq' --support $support --engine pivot --split "\$SLURM_ARRAY_TASK_ID/$of"$words > "\$share.new" && mv "\$share.new" "\$share"
END
cat > "$folder/merge" <<END
#!/bin/sh
'$desq' --support $support --merge $(seq -f "'$folder'/%.0f" "$of" | tr '\n' ' ')> '$folder/answer.new' &&
    mv '$folder/answer.new' '$folder/answer'
END
shares=$(sbatch --parsable --array="1-$of" --output="$folder/%a.log" "$folder/share")
sbatch --parsable --dependency="afterok:$shares" --kill-on-invalid-dep=yes --output="$folder/merge.log" "$folder/merge"
