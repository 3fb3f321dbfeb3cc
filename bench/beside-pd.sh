# shellcheck shell=bash
# Read by the benchmarks of edits, in the folder of the run: pdplay and Pd over the patch made.pd and the edits of the moment, the file `script` for the
# one and `list` for the other. $other names the function that runs Pd, where it is installed.
# shellcheck disable=SC2154,SC2034

# Runs of the two programs, over the patch and the edits of the moment.
ours() { "$program" made.pd; }
theirs() { pd -nogui -noprefs -batch -open made.pd -open drive.pd; }
none() { :; }

cat >drive.pd <<'END'
#N canvas 0 0 400 300 12; #X obj 0 0 loadbang; #X obj 0 0 t b b; #X msg 0 0 \; pd dsp 1; #X msg 0 0 read list \, bang; #X obj 0 0 qlist;
#X msg 0 0 \; pd quit; #X connect 0 0 1 0; #X connect 1 1 2 0; #X connect 1 0 3 0; #X connect 3 0 4 0; #X connect 4 1 5 0;
END

other=none
command -v pd >/dev/null && other=theirs
