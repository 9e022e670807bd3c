// Qt: each item of standard input as a QCborValue, which is printed as diagnostic notation.
#include <QByteArray>
#include <QCborStreamReader>
#include <QCborValue>
#include <QFile>
#include <QString>
#include <cstdio>

int main()
{
    QFile in, out;
    if (!in.open(stdin, QIODevice::ReadOnly) || !out.open(stdout, QIODevice::WriteOnly))
        return 4;
    const QByteArray data = in.readAll();
    // a reader reads one item of a sequence
    for (qint64 offset = 0; offset < data.size();) {
        QCborStreamReader reader(QByteArray::fromRawData(data.constData() + offset, int(data.size() - offset)));
        const QCborValue value = QCborValue::fromCbor(reader);
        if (reader.lastError() != QCborError::NoError || reader.currentOffset() == 0) {
            std::fprintf(stderr, "%s\n", qPrintable(reader.lastError().toString()));
            return 2;
        }
        offset += reader.currentOffset();
        out.write(value.toDiagnosticNotation().toUtf8());
        out.putChar('\n');
    }
    return out.flush() ? 0 : 4;
}
