// A flange: a plate of 80 x 60 x 10 mm with a hub, a bore and two holes. openscad -o flange.stl --export-format binstl flange.scad
$fn = 12;
difference() {
  union() {
    translate([-40, -30, 0]) cube([80, 60, 10]);
    cylinder(r = 18, h = 25);
  }
  translate([0, 0, -1]) cylinder(r = 10, h = 30);
  for (x = [-30, 30]) translate([x, 0, -1]) cylinder(r = 4, h = 12);
}
