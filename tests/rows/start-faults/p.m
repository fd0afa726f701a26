var a, b : boolean; startstate "S" a := !b; end;
