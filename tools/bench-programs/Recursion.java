class Calc {
  int fib(int n) { if (n < 2) return n; return fib(n - 1) + fib(n - 2); }
  int deep(int n) { if (n == 0) return 0; return 1 + deep(n - 1); }
}
class Main {
  public static void main(String[] args) {
    Calc c = new Calc();
    int sum = 0;
    int i = 0;
    while (i < 20) { sum = sum + c.fib(22) + c.deep(1000); i = i + 1; }
    System.out.println(sum);
  }
}
