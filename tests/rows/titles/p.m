var a : boolean; startstate a := true; end; invariant "A" a; invariant "A" a; invariant "" a; invariant "#1" a; invariant a;
