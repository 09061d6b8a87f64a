IMPLEMENTATION MODULE Reachability;

FROM Graphs IMPORT Edge, Graph, NoEdge, Node;

PROCEDURE Enter(graph: Graph; VAR reaches: Relation);
(* Enters the paths without edges and those of one edge. *)
VAR
  from, to: CARDINAL;
  edge: Edge;
BEGIN
  FOR from := 1 TO graph.nodes DO
    FOR to := 1 TO graph.nodes DO reaches[from, to] := from = to END;
    edge := graph.first[from];
    WHILE edge # NoEdge DO
      reaches[from, graph.target[edge]] := TRUE;
      edge := graph.next[edge]
    END
  END
END Enter;

PROCEDURE Close(graph: Graph; VAR reaches: Relation);
(* Warshall's way: after the turn for a node all paths are known whose nodes within are up to this one. *)
VAR
  within, from, to: CARDINAL;
BEGIN
  Enter(graph, reaches);
  FOR within := 1 TO graph.nodes DO
    FOR from := 1 TO graph.nodes DO
      IF reaches[from, within] THEN
        FOR to := 1 TO graph.nodes DO
          IF reaches[within, to] THEN reaches[from, to] := TRUE END
        END
      END
    END
  END
END Close;

END Reachability.
