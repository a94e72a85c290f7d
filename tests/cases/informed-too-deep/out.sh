printf 'SD\n'; i=0; while [ $i -lt 512 ]; do printf 'SE "" "a"\n'; i=$((i + 1)); done; printf 'fault DepthLimit 9\n'
