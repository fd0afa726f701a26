var a, b : boolean;
startstate "Init" a := true; b := false; end;
rule "Move" a ==> a := false; b := true; end;
rule "Back" b ==> a := true; b := false; end;
invariant "One" a != b;
