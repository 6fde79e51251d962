# Draws the picture from the data above. Places on the page are in pixels, from the left and from the top.
width = 1000
height = settings ? 1040 : 640
ohm(steps) = steps / 1024.
words_of(line) = line[2:*]  # behind its mark
set encoding utf8
set terminal svg size width,height noenhanced rounded font 'sans-serif,13' background 'white'
set multiplot
set border linewidth 0.8 linecolor '#606060'
set tics nomirror scale 0.5 font ',11'
set format '%.10g'
set samples 80
unset key
set clip two
set style textbox opaque noborder fillcolor 'white' margins 0.5,0.2

# What differs in colour differs in form or in lightness too.
grey = '#a8a8a8'
faint = '#e8e8e8'
pale = '#808080'
blue = '#3a8fc8'
brown = '#a04f00'
set style line 1 linecolor rgb grey linewidth 1                    # control rectangles
set style line 2 linecolor '#505050' linewidth 1.3 dashtype (8,5)  # the span
set style line 3 linecolor 'black' linewidth 1.2                   # staged readings
set style line 4 linecolor rgb blue linewidth 1                    # summed readings
set style line 5 linecolor '#808080' linewidth 1.2                 # boxes
set style line 6 linecolor 'black' linewidth 3.5                   # the chosen box
set style line 7 linecolor rgb brown linewidth 2.6 dashtype (2,4)  # the first box that fails
set style line 8 linecolor '#d8d8d8' linewidth 0.8                 # the Smith chart's grid
set style line 9 linecolor '#404040' linewidth 1.2 dashtype (1,4)  # circles of one SWR

# One row, for what is drawn from numbers alone.
$one << END
1
END

# Puts the next plot between the pixels left, right, top and bottom.
panel = 'set lmargin at screen left/1./width; set rmargin at screen right/1./width; \
         set tmargin at screen 1 - top/1./height; set bmargin at screen 1 - bottom/1./height'

# 1. Resistance and reactance across the band, one above the other: a and b are the columns of their low and high sides.
place(k) = 16. * k / degree
margin(low, high) = ohm(high > low ? 0.08 * (high - low) : 1)
left = 100; right = 520
set xrange [-0.9:16.9]
set xtics 0,1,16 format ''
array tops = [102, 298]
array lows = [r_low, x_low]
array highs = [r_high, x_high]
do for [k = 1:2] {
  a = 2*k; b = 2*k + 1
  low = lows[k]; high = highs[k]
  top = tops[k]; bottom = top + 188
  @panel
  set yrange [ohm(low) - margin(low, high):ohm(high) + margin(low, high)]
  plot \
    $control using (place($1)):(ohm(column(a))):(place($1) - 0.7):(place($1) + 0.7):(ohm(column(a))):(ohm(column(b))) \
      with boxxyerror fillcolor rgb faint fillstyle solid border linecolor rgb grey, \
    $one using (8):(ohm(low)):(-0.7):(16.7):(ohm(low)):(ohm(high)) with boxxyerror fillstyle empty linestyle 2, \
    $staged using 1:(ohm(column(a))):($1 - 0.36):($1 + 0.36):(ohm(column(a))):(ohm(column(b))) \
      with boxxyerror fillstyle empty linestyle 3, \
    $summed using 1:(ohm(column(a))):($1 - 0.2):($1 + 0.2):(ohm(column(a))):(ohm(column(b))) \
      with boxxyerror fillstyle solid linestyle 4
}

# Below them which readings are lit, and the stretch on which the search of the first box that fails ended.
rows = 2 + stretches
top = 492; bottom = top + 19*rows
@panel
set yrange [rows:0]
set ytics ('staged' 0.5, 'summed' 1.5) scale 0
if (stretches) {
  set ytics add ('box 0 fails' 2.5)
  set object 1 rectangle from 16.*index/2**depth,2.2 to 16.*(index + 1)/2**depth,2.8 linewidth 3 \
    fillcolor rgb brown fillstyle solid border linecolor rgb brown
}
set xtics 0,1,16 format '%.0f' offset 0,0.3
plot \
  $staged using 1:(0.5):($6 == 1 ? 0.9 : 0.15) \
    with points pointtype 7 pointsize variable linecolor 'black', \
  $summed using 1:(1.5):($6 == 1 ? 0.9 : 0.15) \
    with points pointtype 7 pointsize variable linecolor 'black'
unset object

# 3. The boxes of the list, and the readings. A box is drawn by its four edges, each from one column of the resistance and
# one of the reactance to another, so that what is out of the frame is left out. Style 6 is for the chosen box, 7 for the
# first that fails and 5 for the others.
from_r = '2 3 3 2'; to_r = '3 3 2 2'
from_x = '4 4 5 5'; to_x = '4 5 5 4'
from(columns, edge) = ohm(column(int(word(columns, edge))))
style(fate) = fate == 3 ? 5 : fate + 5
edges = '$boxes using ($7 == fate ? from(from_r, edge) : NaN):(from(from_x, edge)): \
  (from(to_r, edge) - from(from_r, edge)):(from(to_x, edge) - from(from_x, edge)) \
  with vectors nohead linestyle style(fate)'
if (settings) {
  left = 100; right = 560; top = 690; bottom = 990
  @panel
  set xtics autofreq format '%.10g' scale 0.5
  set ytics autofreq format '%.10g' scale 0.5
  set xrange [ohm(frame_left):ohm(frame_right)]
  set yrange [ohm(frame_bottom):ohm(frame_top)]
  do for [k = 1:names] {
    row = $names[k + 1]
    set label k word(row, 3) at ohm(real(word(row, 1))),ohm(real(word(row, 2))) font ',11' front
  }
  plot \
    for [fate = 3:3] for [edge = 1:4] @edges, \
    $summed using (ohm($2)):(ohm($4)):(ohm($2)):(ohm($3)):(ohm($4)):(ohm($5)) with boxxyerror fillstyle solid linestyle 4, \
    $staged using (ohm($2)):(ohm($4)):(ohm($2)):(ohm($3)):(ohm($4)):(ohm($5)) \
      with boxxyerror fillstyle empty linestyle 3 linewidth 0.8, \
    for [fate = 1:2] for [edge = 1:4] @edges
  unset label
}

# 2. The Smith chart: circles of one resistance, of one reactance and of one SWR, then the regions.
left = 570; right = 990; top = 96; bottom = 516
@panel
unset border
unset tics
set xrange [-window:window]
set yrange [-window:window]
reflection(r, x) = (r + {0,1} * x - 50) / (r + {0,1} * x + 50)
far(t) = 50 * tan(t * pi / 2 * 0.9999)
grid = '10 25 50 100 250'
radius(ratio) = (ratio - 1.) / (ratio + 1)
do for [k = 1:words(grid)] {
  ohms = word(grid, k)
  r = real(ohms)
  rim = 1.1 * reflection(0, r)
  set label 10 + k ohms at r/(r + 50),side*(50/(r + 50) + 0.04) center font ',10' textcolor rgb pale front
  set label 20 + k ohms at real(rim),imag(rim) center font ',10' textcolor rgb pale front
  set label 30 + k '−'.ohms at real(rim),-imag(rim) center font ',10' textcolor rgb pale front
}
do for [k = 2:|$ratios|] {
  row = $ratios[k]
  set label 40 + k 'SWR '.word(row, 1) at real(word(row, 2)),real(word(row, 3)) center boxed font ',10' front
}
do for [k = 1:ends] {
  row = $ends[k + 1]
  set label 50 + k word(row, 3) at real(word(row, 1)),real(word(row, 2)) center font ',11' front
}
set parametric
set trange [0:1]
plot \
  for [r in grid] (r + 50*cos(2*pi*t))/(r + 50),50*sin(2*pi*t)/(r + 50) with lines linestyle 8, \
  for [x in grid] real(reflection(far(t), real(x))),imag(reflection(far(t), real(x))) with lines linestyle 8, \
  for [x in grid] real(reflection(far(t), real(x))),-imag(reflection(far(t), real(x))) with lines linestyle 8, \
  2*t - 1,0 with lines linestyle 8, \
  for [k = 0:regions - 1] $summed_regions index k using 1:2 \
    with filledcurves closed fillstyle solid noborder fillcolor rgb blue, \
  cos(2*pi*t),sin(2*pi*t) with lines linecolor '#606060' linewidth 1.2, \
  for [k = 2:|$ratios|] radius(word($ratios[k], 1))*cos(2*pi*t),radius(word($ratios[k], 1))*sin(2*pi*t) \
    with lines linestyle 9, \
  $control_outlines using 1:2 with lines linestyle 1, \
  $span_outline using 1:2 with lines linestyle 2, \
  $summed_outlines using 1:2 with lines linestyle 4, \
  $staged_outlines using 1:2 with lines linestyle 3 linewidth 0.7, \
  $lit using 1:2 with points pointtype 7 pointsize 0.35 linecolor 'black'
unset parametric
unset label

# The page around the panels: titles, axes and what each form is.
left = 0; right = width; top = 0; bottom = height
@panel
set xrange [0:width]
set yrange [height:0]
set label 1 words_of($title[1]) at width/2,24 center font ',19'
set label 2 words_of($title[2]) at width/2,50 center font ',14'
set label 3 '1. The load across the band' at 24,84 font ',15'
set label 4 'resistance, ohm' at 14,196 center rotate
set label 5 'reactance, ohm' at 14,392 center rotate
set label 6 'lit' at 14,511 center rotate
set label 7 'place in the band, in sixteenths' at 310,525 + 19*rows center
set label 8 '2. The same on a Smith chart at 50 ohm' at 560,84 font ',15'
set label 9 'circles of resistance and arcs of reactance, in ohm' at 780,534 center font ',10' textcolor rgb pale
set label 10 words_of($beyond[1]) at 780,554 center font ',11'
set label 11 words_of($beyond[2]) at 780,572 center font ',11'
set label 12 'control rectangle' at 60,616 font ',12'
set label 13 'span' at 220,616 font ',12'
set label 14 'staged reading, rounded at each stage' at 306,616 font ',12'
set label 15 'summed reading, rounded once' at 598,616 font ',12'
set label 16 'lit: nothing was rounded' at 834,616 font ',12'
if (settings) {
  set label 20 '3. The boxes of the settings' at 24,672 font ',15'
  set label 21 'resistance, ohm' at 330,1026 center
  set label 22 'reactance, ohm' at 14,840 center rotate
  answer = ''
  do for [k = 1:|$answer|] { answer = answer.words_of($answer[k])."\n" }
  set label 23 answer at 590,704
  set label 24 'a box of the list, with its index and setting number;' at 630,930
  set label 25 'its high sides are the first values not allowed' at 630,948
  set label 26 'the chosen one' at 630,972
  set label 27 'the first that fails' at 630,996
}
plot \
  $one using (38):(616):(24):(52):(608):(624) \
    with boxxyerror fillcolor rgb faint fillstyle solid border linecolor rgb grey, \
  $one using (198):(616):(184):(212):(608):(624) with boxxyerror fillstyle empty linestyle 2, \
  $one using (284):(616):(270):(298):(608):(624) with boxxyerror fillstyle empty linestyle 3, \
  $one using (576):(616):(562):(590):(608):(624) with boxxyerror fillstyle solid linestyle 4, \
  $one using (820):(616) with points pointtype 7 pointsize 0.9 linecolor 'black', \
  for [k = 1:settings] $one using (606):(930):(592):(620):(922):(938) with boxxyerror fillstyle empty linestyle 5, \
  for [k = 1:settings] $one using (606):(972):(592):(620):(964):(980) with boxxyerror fillstyle empty linestyle 6, \
  for [k = 1:settings] $one using (606):(996):(592):(620):(988):(1004) with boxxyerror fillstyle empty linestyle 7
unset multiplot
