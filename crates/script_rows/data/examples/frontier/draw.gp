# The files out/frontier1 and out/frontier3: cost and emissions of each outcome.
set terminal png size 900,600
set output "out/frontier.png"
set key right top
set xlabel "cost, in tens of euros"
set ylabel "kilograms of CO2"
set yrange [0:*]
plot "out/frontier1" with steps linewidth 2 linetype 1 notitle, \
     "out/frontier1" with points pointtype 7 linetype 1 title "today", \
     "out/frontier3" with steps linewidth 2 linetype 2 notitle, \
     "out/frontier3" with points pointtype 7 linetype 2 title "with vans that the sun charges"
