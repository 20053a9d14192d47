package java.util.regex;

import java.util.ArrayList;
import java.util.List;

/** One part or another. */
final class Choice extends Node {
    List<Node> parts = new ArrayList<>();

    boolean fits(Matcher matcher, int at) {
        for (int k = 0; k < parts.size(); k++) {
            if (parts.get(k).fits(matcher, at)) {
                return true;
            }
        }
        return false;
    }
}
