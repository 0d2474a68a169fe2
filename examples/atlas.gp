# The classes of an order along the real axis: each class is a bar at its certified interval, at the height of the number of classes below it.
#   ./run atlas 32 > atlas.csv && gnuplot examples/atlas.gp
set terminal pngcairo size 1600,900; set output 'atlas.png'; set datafile separator ','; unset key; set grid
set xlabel 'logarithm of the growth rate'; set ylabel 'classes that certainly lie below'
plot 'atlas.csv' skip 1 using (log(($7+$8)/2/2**32)):9:(log($7/2**32)):(log($8/2**32)) with xerrorbars pointtype 7 pointsize 0.4
