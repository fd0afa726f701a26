var x : boolean; startstate "S" x := false; end; invariant "X" x = true;
