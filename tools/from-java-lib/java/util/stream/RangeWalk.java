package java.util.stream;

import java.util.Iterator;

class RangeWalk implements Iterator<Integer> {
    private int at;
    private int end;

    RangeWalk(int at, int end) {
        this.at = at;
        this.end = end;
    }

    public boolean hasNext() {
        return at < end;
    }

    public Integer next() {
        return at++;
    }
}
