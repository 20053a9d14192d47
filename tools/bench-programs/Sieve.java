class Main {
  public static void main(String[] args) {
    int n = 2000000;
    boolean[] out = new boolean[n + 1];
    int i = 2;
    int count = 0;
    while (i <= n) {
      if (!out[i]) {
        count = count + 1;
        int k = i + i;
        while (k <= n && k > 0) { out[k] = true; k = k + i; }
      }
      i = i + 1;
    }
    int[] sums = new int[1000];
    int j = 0;
    while (j < 3000000) { sums[j % 1000] = sums[j % 1000] + j; j = j + 1; }
    System.out.println(count);
    System.out.println(sums[7]);
  }
}
