class P {
  int a;
  int b;
}
class Points {
  public static void main(String[] args) {
    P x = new P();
    P y = new P();
    x.a = 1;
    y.b = 2;
    System.out.println(x.a + y.b);
  }
}
