import java.nio.charset.StandardCharsets;
import java.nio.file.Paths;
import java.util.Base64;
import java.util.TreeSet;
import org.apache.lucene.index.DirectoryReader;
import org.apache.lucene.index.FieldInfo;
import org.apache.lucene.index.IndexOptions;
import org.apache.lucene.index.IndexableField;
import org.apache.lucene.index.LeafReaderContext;
import org.apache.lucene.index.ReaderUtil;
import org.apache.lucene.index.SegmentReader;
import org.apache.lucene.index.Term;
import org.apache.lucene.index.TermsEnum;
import org.apache.lucene.search.IndexSearcher;
import org.apache.lucene.search.ScoreDoc;
import org.apache.lucene.search.Sort;
import org.apache.lucene.search.TermQuery;
import org.apache.lucene.store.FSDirectory;

/**
 * Writes what Lucene finds in an index: for each field and term a line `term FIELD TERM`, and for each document that was not
 * deleted a line `stored DOC` with `NAME:KIND:VALUE` for each of its stored fields. Names, terms and values stand in base64,
 * and a document is `SEGMENT/NUMBER`; the hits of a term follow it. tools/test_pack.py compares with these lines.
 *
 * <pre>
 * CP=$(echo /usr/share/java/lucene-*-8.7.0.jar | tr ' ' ':')
 * javac -cp "$CP" SearchIndex.java && java -cp "$CP:." SearchIndex INDEX
 * </pre>
 */
public class SearchIndex {
    static String base64(byte[] bytes, int offset, int length) {
        return Base64.getEncoder().encodeToString(java.util.Arrays.copyOfRange(bytes, offset, offset + length));
    }

    static String base64(String text) {
        byte[] bytes = text.getBytes(StandardCharsets.UTF_8);
        return base64(bytes, 0, bytes.length);
    }

    static String place(DirectoryReader reader, int doc) {
        LeafReaderContext leaf = reader.leaves().get(ReaderUtil.subIndex(doc, reader.leaves()));
        return ((SegmentReader) leaf.reader()).getSegmentName() + "/" + (doc - leaf.docBase);
    }

    static String kind(IndexableField field) {
        if (field.numericValue() == null) {
            return field.binaryValue() == null ? "string" : "binary";
        }
        return field.numericValue().getClass().getSimpleName().replace("Integer", "int").toLowerCase();
    }

    static TreeSet<Term> terms(DirectoryReader reader) throws Exception {
        TreeSet<Term> all = new TreeSet<>();
        for (LeafReaderContext leaf : reader.leaves()) {
            for (FieldInfo field : leaf.reader().getFieldInfos()) {
                if (field.getIndexOptions() != IndexOptions.NONE) {
                    TermsEnum terms = leaf.reader().terms(field.name).iterator();
                    while (terms.next() != null) {
                        all.add(new Term(field.name, terms.term()));
                    }
                }
            }
        }
        return all;
    }

    public static void main(String[] args) throws Exception {
        try (DirectoryReader reader = DirectoryReader.open(FSDirectory.open(Paths.get(args[0])))) {
            IndexSearcher searcher = new IndexSearcher(reader);
            for (Term term : terms(reader)) {
                StringBuilder line = new StringBuilder("term " + base64(term.field()) + " "
                        + base64(term.bytes().bytes, term.bytes().offset, term.bytes().length));
                for (ScoreDoc hit : searcher.search(new TermQuery(term), reader.maxDoc(), Sort.INDEXORDER).scoreDocs) {
                    line.append(" ").append(place(reader, hit.doc));
                }
                System.out.println(line);
            }
            for (LeafReaderContext leaf : reader.leaves()) {
                for (int doc = 0; doc < leaf.reader().maxDoc(); doc++) {
                    if (leaf.reader().getLiveDocs() != null && !leaf.reader().getLiveDocs().get(doc)) {
                        continue;
                    }
                    StringBuilder line = new StringBuilder("stored " + place(reader, leaf.docBase + doc));
                    for (IndexableField field : leaf.reader().document(doc)) {
                        line.append(" ").append(base64(field.name())).append(":").append(kind(field)).append(":")
                                .append(base64(field.stringValue() == null ? "" : field.stringValue()));
                    }
                    System.out.println(line);
                }
            }
        }
    }
}
