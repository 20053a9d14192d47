class Kinds {
  public static void main(String[] args) {
    Object some = new A();
    some = new B();
    if (some instanceof A) {
      ((A) some).a = 1;
    }
    if (some instanceof B) {
      ((B) some).b = 2;
    }
    C third = new C();
    third.c = 3;
    System.out.println(third.c);
  }
}
class A {
  int a;
}
class B {
  int b;
}
class C {
  int c;
}
