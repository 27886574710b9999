# A bar for each pattern of an answer of desq: gnuplot -e "answer = 'FILE'; picture = 'FILE.svg'" chart.gp
# gnuplot would take a double quote in a name for the begin of a quoted text, so two single ones are shown.
set terminal svg size 720,360 noenhanced font "sans-serif,12"
set output picture
set datafile separator "\t"
set style fill solid 0.6
set boxwidth 0.7
set yrange [0:*]
set ylabel "customers"
set xtics rotate by -20
unset key
plot sprintf("< sed \"s/\\\"/''/g\" '%s'", answer) using 0:1:xticlabels(2) with boxes
