# Certified bars of the core entropy over the angle. The true value lies within each bar.
#   ./run map 64 --turns 0 | examples/entropy | tr / ' ' > entropy.dat && gnuplot examples/bars.gp
set terminal pngcairo size 1600,900
set output 'entropy.png'
set xlabel 'external angle'; set ylabel 'core entropy'; set xrange [0:1]; set yrange [0:0.75]; unset key; set grid
plot 'entropy.dat' using ($1/$2):(($3+$4)/2):3:4 with yerrorbars pointtype 7 pointsize 0.3
