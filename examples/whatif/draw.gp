# The table out/whatif.dat: tons, the bound from below, the bound from above, and the best cost.
set terminal png size 900,600
set output "out/whatif.png"
set datafile missing "none"
set key left top
set xlabel "tons to move"
set ylabel "cost"
plot "out/whatif.dat" using 1:4 with steps linewidth 2 title "the best fleet of each order", \
     "" using 1:2 with linespoints title "at least, by the one search", \
     "" using 1:3 with points title "at most, by the one search"
