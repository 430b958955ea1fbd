# What the pictures share. `bench/strategies draw` gives `data`, the folder of the columns, and `picture`, the file to
# write.
set terminal svg size 900,560 dynamic font "sans-serif,14" background "white"
set output picture
set grid linecolor "#dddddd"
set border 3
set tics nomirror
# The tables in their order, and then rsync, rsync -z, the raw list and the model of negentropy.
set linetype 1 linecolor "#1f77b4" linewidth 2.5 pointtype 7 pointsize 0.6
set linetype 2 linecolor "#2ca02c" linewidth 2 pointtype 5 pointsize 0.6
set linetype 3 linecolor "#d62728" linewidth 2 pointtype 9 pointsize 0.7
set linetype 4 linecolor "#9467bd" linewidth 2 pointtype 13 pointsize 0.7
set linetype 5 linecolor "#8c564b" linewidth 2 pointtype 11 pointsize 0.6
set linetype 6 linecolor "#444444" linewidth 2 dashtype 2 pointtype 4 pointsize 0.6
set linetype 7 linecolor "#888888" linewidth 2 dashtype 2 pointtype 6 pointsize 0.6
set linetype 8 linecolor "#000000" linewidth 1.5 dashtype 3 pointtype 0
set linetype 9 linecolor "#ff7f0e" linewidth 2 dashtype 4 pointtype 1 pointsize 0.6
