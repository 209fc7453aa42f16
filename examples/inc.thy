theory Inc version 1 begin
  program put :: nat => nat;
  spec x . x < 3 --> x < put x;
end
