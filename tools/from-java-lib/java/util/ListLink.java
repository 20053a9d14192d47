package java.util;

/** An element of a linked list. */
final class ListLink<E> {
    E item;
    ListLink<E> next;
    ListLink<E> previous;
}
