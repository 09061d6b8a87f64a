MODULE Tarjan;
(* Tarjan's strongly connected components, of graphs drawn by hand and of graphs made by chance. What is found is tried by a
   slower way. *)

FROM Components IMPORT Find, Numbers;
FROM Graphs IMPORT AddEdge, Clear, Graph;
FROM InOut IMPORT Write, WriteCard, WriteLn, WriteString;
FROM Random IMPORT RandomCard, RandomInit;
FROM Reachability IMPORT Close, Relation;

CONST
  Seed = 1972;

VAR
  graph: Graph;

PROCEDURE WriteNodes(component: Numbers; wanted: CARDINAL);
(* prints the nodes of one component *)
VAR
  node: CARDINAL;
BEGIN
  FOR node := 1 TO graph.nodes DO
    IF component[node] = wanted THEN
      Write(" ");
      WriteCard(node, 0)
    END
  END
END WriteNodes;

PROCEDURE IsRight(component: Numbers): BOOLEAN;
(* whether nodes have one number exactly if each reaches the other, and no path leads to a greater number *)
VAR
  reaches: Relation;
  from, to: CARDINAL;
  isMutual: BOOLEAN;
BEGIN
  Close(graph, reaches);
  FOR from := 1 TO graph.nodes DO
    FOR to := 1 TO graph.nodes DO
      isMutual := reaches[from, to] AND reaches[to, from];
      IF isMutual # (component[from] = component[to]) THEN RETURN FALSE END;
      IF reaches[from, to] AND (component[from] < component[to]) THEN RETURN FALSE END
    END
  END;
  RETURN TRUE
END IsRight;

PROCEDURE Show(title: ARRAY OF CHAR);
(* prints the components of the graph *)
VAR
  component: Numbers;
  count, number: CARDINAL;
BEGIN
  WriteString(title);
  WriteString(": nodes ");
  WriteCard(graph.nodes, 0);
  WriteString(", edges ");
  WriteCard(graph.edges, 0);
  Find(graph, component, count);
  WriteString(", components ");
  WriteCard(count, 0);
  WriteLn;
  FOR number := 1 TO count DO
    WriteCard(number, 4);
    Write(":");
    WriteNodes(component, number);
    WriteLn
  END;
  IF IsRight(component) THEN WriteString("right") ELSE WriteString("wrong") END;
  WriteLn;
  WriteLn
END Show;

PROCEDURE ShowDrawn;
(* graphs drawn by hand *)
BEGIN
  Clear(graph, 0);
  Show("nothing");
  Clear(graph, 3);
  Show("no edges");
  Clear(graph, 4);
  AddEdge(graph, 1, 2);
  AddEdge(graph, 2, 3);
  AddEdge(graph, 3, 4);
  AddEdge(graph, 1, 1);
  Show("a path");
  AddEdge(graph, 4, 1);
  Show("a ring");
  Clear(graph, 8);
  AddEdge(graph, 1, 2);
  AddEdge(graph, 2, 3);
  AddEdge(graph, 3, 1);
  AddEdge(graph, 4, 2);
  AddEdge(graph, 4, 3);
  AddEdge(graph, 4, 5);
  AddEdge(graph, 5, 4);
  AddEdge(graph, 5, 6);
  AddEdge(graph, 6, 3);
  AddEdge(graph, 6, 7);
  AddEdge(graph, 7, 6);
  AddEdge(graph, 8, 5);
  AddEdge(graph, 8, 7);
  AddEdge(graph, 8, 8);
  Show("eight nodes")
END ShowDrawn;

PROCEDURE ShowRandom(title: ARRAY OF CHAR; nodes, edges: CARDINAL);
(* a graph made by chance *)
VAR
  i, from: CARDINAL;
BEGIN
  Clear(graph, nodes);
  FOR i := 1 TO edges DO
    from := 1 + RandomCard(nodes);
    AddEdge(graph, from, 1 + RandomCard(nodes))
  END;
  Show(title)
END ShowRandom;

BEGIN
  ShowDrawn;
  RandomInit(Seed);
  ShowRandom("few edges", 20, 20);
  ShowRandom("some edges", 30, 45);
  ShowRandom("many edges", 30, 90)
END Tarjan.
