SetFactory("OpenCASCADE");
Box(1) = {0, 0, 0, 0.08, 0.05, 0.02};
Cylinder(2) = {0.055, 0.025, -0.01, 0, 0, 0.04, 0.012};
BooleanDifference(3) = { Volume{1}; Delete; }{ Volume{2}; Delete; };
Physical Volume("part") = {3};
Mesh.MeshSizeMax = 0.003;
