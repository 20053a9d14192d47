class A {
  int f;
  int m() { return this.f; }
}
class B extends A {
  int m() { return 2; }
}
class Bases {
  public static void main(String[] args) {
    A x = new A();
    System.out.println(x.f);
  }
}
