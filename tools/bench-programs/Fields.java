class Body {
  int x; int y; int z; int vx; int vy; int vz; int m; int steps; int hits;
  int energy;
  void step(Body other) {
    int dx = other.x - this.x;
    int dy = other.y - this.y;
    int dz = other.z - this.z;
    int d = dx * dx + dy * dy + dz * dz + 1;
    this.vx = this.vx + dx * other.m / d;
    this.vy = this.vy + dy * other.m / d;
    this.vz = this.vz + dz * other.m / d;
    this.steps = this.steps + 1;
    if (d < 100) { this.hits = this.hits + 1; }
  }
  void move() {
    this.x = this.x + this.vx;
    this.y = this.y + this.vy;
    this.z = this.z + this.vz;
    this.energy = this.m * (this.vx * this.vx + this.vy * this.vy + this.vz * this.vz);
  }
}
class Main {
  public static void main(String[] args) {
    Body[] all = new Body[5];
    int i = 0;
    while (i < 5) { all[i] = new Body(); all[i].x = i * 100; all[i].y = i * i * 10; all[i].z = 7 * i; all[i].m = 1000 + i; i = i + 1; }
    int t = 0;
    while (t < 20000) {
      i = 0;
      while (i < 5) {
        int j = 0;
        while (j < 5) { if (i != j) { all[i].step(all[j]); } j = j + 1; }
        i = i + 1;
      }
      i = 0;
      while (i < 5) { all[i].move(); i = i + 1; }
      t = t + 1;
    }
    System.out.println(all[2].x + " " + all[3].energy + " " + all[1].hits);
  }
}
