# Draws the CSV that the variable `csv` of the environment names; tools/plot runs it.
set terminal svg size 800,400 background "white"
set datafile separator ","
set key off
set grid
set style line 1 linecolor rgb "#1f4e9a" linewidth 1.5
csv = system("printf '%s' \"$csv\"")
header = system("head -n 1 \"$csv\"")
comma = strstrt(header, ",")
set xlabel header[1:comma - 1] noenhanced
set ylabel header[comma + 1:*] noenhanced
plot csv using 1:2 skip 1 with lines linestyle 1
