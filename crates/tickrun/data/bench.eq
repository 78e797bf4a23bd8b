compute output where
  n = 0 fby n + input;
  r = n asa n gt 5;
  result = if n lt r then n else r
end
