var a, b : boolean; startstate a := true; end; rule "R" b ==> a := false; end;
