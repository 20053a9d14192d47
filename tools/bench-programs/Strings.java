class Main {
  public static void main(String[] args) {
    int i = 0;
    int sum = 0;
    while (i < 200000) {
      String s = "n" + i + ":" + (i % 7);
      sum = sum + s.length();
      if (s.charAt(s.length() - 1) == '3') { sum = sum + 1; }
      if (s.equals("n77:0")) { sum = sum + 5; }
      i = i + 1;
    }
    System.out.println(sum);
  }
}
