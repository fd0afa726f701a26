var a, b : boolean; startstate "S" a := true; b := true; end; rule "R" a ==> b := false; end; invariant "A" a; invariant "B" b;
