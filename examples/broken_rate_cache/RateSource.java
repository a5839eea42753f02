package cache;

/** Where rates come from; a look-up may take long. */
public interface RateSource {
  int lookUp(int currency);
}
