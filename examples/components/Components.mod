IMPLEMENTATION MODULE Components;

FROM Graphs IMPORT Edge, Graph, MostNodes, NoEdge, Node;

PROCEDURE Find(graph: Graph; VAR component: Numbers; VAR count: CARDINAL);
(* Tarjan's way. The nodes are visited by depth first search, and numbered in the order in which they are met. Those whose
   component is not known yet stand on a stack. The low number of a node is the least number of a node on the stack that
   was seen to be within its reach. If it is the node's own number, the node is the first of its component that was met,
   and the others stand above it on the stack. *)
CONST
  Unknown = 0;
VAR
  number, low: Numbers;
  met: CARDINAL;    (* how many nodes were met *)
  stack: ARRAY [1 .. MostNodes] OF Node;
  top: CARDINAL;
  node: CARDINAL;

  PROCEDURE Lower(node: Node; bound: CARDINAL);
  (* lets the low number of a node be `bound` at most *)
  BEGIN
    IF bound < low[node] THEN low[node] := bound END
  END Lower;

  PROCEDURE TakeComponent(first: Node);
  (* takes the nodes from the top of the stack down to `first`, and gives them the next component's number *)
  VAR
    node: Node;
  BEGIN
    INC(count);
    REPEAT
      node := stack[top];
      DEC(top);
      component[node] := count
    UNTIL node = first
  END TakeComponent;

  PROCEDURE Visit(node: Node);
  VAR
    edge: Edge;
    target: Node;
  BEGIN
    INC(met);
    number[node] := met;
    low[node] := met;
    INC(top);
    stack[top] := node;
    edge := graph.first[node];
    WHILE edge # NoEdge DO
      target := graph.target[edge];
      IF number[target] = Unknown THEN
        Visit(target);
        Lower(node, low[target])
      ELSIF component[target] = Unknown THEN    (* it stands on the stack *)
        Lower(node, number[target])
      END;
      edge := graph.next[edge]
    END;
    IF low[node] = number[node] THEN TakeComponent(node) END
  END Visit;

BEGIN
  met := 0;
  top := 0;
  count := 0;
  FOR node := 1 TO graph.nodes DO
    number[node] := Unknown;
    component[node] := Unknown
  END;
  FOR node := 1 TO graph.nodes DO
    IF number[node] = Unknown THEN Visit(node) END
  END
END Find;

END Components.
