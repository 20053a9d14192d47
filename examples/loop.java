class Main {
  static void main(String[] args) {
    int i = 0;
    while (i < 3) {
      System.out.println(i);
      i = i + 1;
    }
  }
}
