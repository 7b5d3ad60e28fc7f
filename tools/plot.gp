# Plots the outputs of a table of tools/rows2csv over its rows, with a panel for each slave.
#
# usage: gnuplot -e "rows='rows.csv'; picture='rows.png'" tools/plot.gp
#
# The runs of a table stand one behind the other.
head = system(sprintf("head -n 1 '%s' | tr , ' '", rows))
first = word(head, 1) eq 'run' ? 3 : 2
slave(column) = word(head, column)[1:strstrt(word(head, column), '.') - 1]
ends(column) = column == words(head) || slave(column) ne slave(column + 1)
panels = 0
do for [column = first:words(head)] {
    if (ends(column)) { panels = panels + 1 }
}
set datafile separator ','
set terminal pngcairo size 1200,(60 + 180 * panels)
set output picture
set multiplot layout panels,1
set key outside right top noenhanced
set lmargin 10
set rmargin 20
set grid
do for [column = first:words(head)] {
    if (ends(column)) {
        plot for [c = first:column] rows using 0:c every ::1 with steps title word(head, c)
        first = column + 1
    }
}
unset multiplot
