var a, b : boolean; startstate "S" a := true; b := true; end; rule a ==> b := false; end; invariant "A" a; invariant "B" b;
