compute output where
  limit = 12;
  live = input - input1;
  tick = 0 fby tick + 1;
  peak = live fby if live gt peak then live else peak;
  tripped = tick asa live gt limit;
  coming = if next live gt live then next live else live;
  free = limit - (if tick lt tripped then live else coming);
  result = if peak gt limit and free gt 0 then free / 2 else if free gt 0 then free else 0
end
