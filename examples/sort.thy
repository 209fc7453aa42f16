theory Sort version 1 begin
  datatype 'a list = Nil | Cons 'a ('a list);
  primrec ins :: nat => nat list => nat list where
    ins x Nil = Cons x Nil;
    ins x (Cons y ys) = if x <= y then Cons x (Cons y ys) else Cons y (ins x ys);
  primrec isort :: nat list => nat list where
    isort Nil = Nil;
    isort (Cons x xs) = ins x (isort xs);
  program put :: nat list => nat list;
  spec xs . put xs = isort xs;
end
