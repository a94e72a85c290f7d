printf 'SD\nSE "" "a"\nCH text "'
printf '%070000d' 0 | tr 0 x
printf '"\nEE\nED\ndone 560053\n'
