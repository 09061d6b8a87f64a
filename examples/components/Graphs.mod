IMPLEMENTATION MODULE Graphs;

PROCEDURE Clear(VAR graph: Graph; nodes: CARDINAL);
VAR
  node: CARDINAL;
BEGIN
  graph.nodes := nodes;
  graph.edges := 0;
  FOR node := 1 TO nodes DO graph.first[node] := NoEdge END
END Clear;

PROCEDURE AddEdge(VAR graph: Graph; from, to: Node);
BEGIN
  WITH graph DO
    INC(edges);
    target[edges] := to;
    next[edges] := first[from];
    first[from] := edges
  END
END AddEdge;

END Graphs.
