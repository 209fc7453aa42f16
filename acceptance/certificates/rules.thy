theory Rules version 1 begin
  datatype 'a list = Nil | Cons 'a ('a list);
  datatype shade = Light | Dark;
  datatype ('a, 'b) pair = Pair 'a 'b;
  datatype tree = Node tree nat tree | Leaf;
  definition twice :: nat => nat where
    twice n = n + n;
  primrec before :: nat => nat where
    before 0 = 0;
    before (Suc n) = n;
  primrec length :: 'a list => nat where
    length Nil = 0;
    length (Cons x xs) = Suc (length xs);
  primrec down :: nat => nat where
    down 0 = 0;
    down (Suc n) = down n;
  primrec power :: nat => nat where
    power 0 = 1;
    power (Suc n) = power n + power n;
  primrec full :: nat => tree where
    full 0 = Leaf;
    full (Suc n) = let t = full n in Node t n t;
  program put :: nat => nat list => nat list;
  spec x xs . put x xs = Cons x xs;
end
